import jakarta.servlet.annotation.WebServlet;
import jakarta.servlet.http.HttpServlet;
import jakarta.servlet.http.HttpServletRequest;
import jakarta.servlet.http.HttpServletResponse;
import java.io.IOException;
import java.io.PrintWriter;
import java.nio.charset.StandardCharsets;
import java.security.MessageDigest;
import java.security.NoSuchAlgorithmException;
import java.util.HexFormat;

/** Shows a form for a name and a password; a POST with those of a member leads to the page of the parameter "next". */
@WebServlet("/login")
public final class Login extends HttpServlet {
    /** The SHA-256 sum of a salt and a password stands behind the eight bytes of the salt in what is kept of a member. */
    private static boolean isPassword(String kept, String password) {
        if (kept == null || kept.length() < 8) {
            return false;
        }
        try {
            byte[] salted = (kept.substring(0, 8) + password).getBytes(StandardCharsets.UTF_8);
            String sum = HexFormat.of().formatHex(MessageDigest.getInstance("SHA-256").digest(salted));
            return kept.substring(8).equals(sum);
        } catch (NoSuchAlgorithmException fault) {
            throw new IllegalStateException(fault);
        }
    }

    private static void show(HttpServletRequest request, HttpServletResponse response, String said) throws IOException {
        String token = Csrf.token(request.getSession());
        PrintWriter page = Site.begin(request, response, "login", said);
        page.print(Language.say(request, Language.LOGIN, Language.LOGIN_DE));
        page.print(Site.escape(Site.text(request, "next")));
        page.print("\"><input type=hidden name=csrf value=\"" + token + "\"></form>");
    }

    @Override
    protected void doGet(HttpServletRequest request, HttpServletResponse response) throws IOException {
        show(request, response, "");
    }

    @Override
    protected void doPost(HttpServletRequest request, HttpServletResponse response) throws IOException {
        String name = Site.text(request, "name");
        if (isPassword(getServletContext().getInitParameter(name), Site.text(request, "password"))) {
            request.changeSessionId();
            request.getSession().setAttribute("name", name);
            Site.redirect(response, request.getContextPath() + Language.nextOf(request));
            return;
        }
        response.setStatus(HttpServletResponse.SC_FORBIDDEN);
        show(request, response, Language.say(request, "Please try again.", "Bitte noch einmal."));
    }
}

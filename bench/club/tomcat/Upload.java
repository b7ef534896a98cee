import jakarta.servlet.ServletException;
import jakarta.servlet.annotation.MultipartConfig;
import jakarta.servlet.annotation.WebServlet;
import jakarta.servlet.http.HttpServlet;
import jakarta.servlet.http.HttpServletRequest;
import jakarta.servlet.http.HttpServletResponse;
import jakarta.servlet.http.HttpSession;
import jakarta.servlet.http.Part;
import java.io.IOException;
import java.io.PrintWriter;
import java.nio.charset.StandardCharsets;

/** Shows the list that was sent last as a table; a POST takes one, lines of cells with commas between them. */
@WebServlet("/upload")
@MultipartConfig(maxRequestSize = 65_536)
public final class Upload extends HttpServlet {
    private static final String TABLE =
        "\"><input type=file name=file required><button>OK</button></form><table><tr><td>";

    @Override
    protected void doGet(HttpServletRequest request, HttpServletResponse response) throws IOException {
        HttpSession session = request.getSession();
        PrintWriter page = Site.begin(request, response, "upload", Site.takeFlash(session));
        page.print(Language.say(request, Language.UPLOAD, Language.UPLOAD_DE) + Csrf.token(session) + TABLE);
        String list = (String) session.getAttribute("list");
        page.print(Site.escape(list == null ? "" : list).replace(",", "<td>").replace("\n", "<tr><td>") + "</table>");
    }

    @Override
    protected void doPost(HttpServletRequest request, HttpServletResponse response) throws IOException, ServletException {
        Part part = request.getPart("file");
        if (part == null) {
            response.sendError(HttpServletResponse.SC_BAD_REQUEST, "This form has no file.");
            return;
        }
        HttpSession session = request.getSession();
        session.setAttribute("list", new String(part.getInputStream().readAllBytes(), StandardCharsets.UTF_8));
        session.setAttribute("flash", Language.say(request, "Your list has arrived.", "Ihre Liste ist da."));
        Site.redirect(response, "upload");
    }
}

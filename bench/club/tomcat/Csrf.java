import jakarta.servlet.FilterChain;
import jakarta.servlet.ServletException;
import jakarta.servlet.http.HttpFilter;
import jakarta.servlet.http.HttpServletRequest;
import jakarta.servlet.http.HttpServletResponse;
import jakarta.servlet.http.HttpSession;
import java.io.IOException;
import java.nio.charset.StandardCharsets;
import java.security.MessageDigest;
import java.security.SecureRandom;
import java.util.HexFormat;
import java.util.Set;

/** Lets a request through that brings the token of its session, by the parameter "csrf" or the field "X-Csrf-Token". */
public final class Csrf extends HttpFilter {
    private static final Set<String> SAFE = Set.of("GET", "HEAD", "OPTIONS", "TRACE");
    private static final SecureRandom RANDOM = new SecureRandom();

    /** The token of a session, made if it has none. */
    static String token(HttpSession session) {
        synchronized (session) {
            String token = (String) session.getAttribute("csrf");
            if (token == null) {
                byte[] bytes = new byte[32];
                RANDOM.nextBytes(bytes);
                token = HexFormat.of().formatHex(bytes);
                session.setAttribute("csrf", token);
            }
            return token;
        }
    }

    private static boolean hasToken(HttpServletRequest request) {
        String brought = request.getParameter("csrf");
        if (brought == null) {
            brought = request.getHeader("X-Csrf-Token");
        }
        HttpSession session = request.getSession(false);
        if (brought == null || session == null || session.getAttribute("csrf") == null) {
            return false;
        }
        return MessageDigest.isEqual(brought.getBytes(StandardCharsets.UTF_8), token(session).getBytes(StandardCharsets.UTF_8));
    }

    @Override
    protected void doFilter(HttpServletRequest request, HttpServletResponse response, FilterChain chain) throws IOException, ServletException {
        if (SAFE.contains(request.getMethod()) || hasToken(request)) {
            chain.doFilter(request, response);
        } else {
            response.sendError(HttpServletResponse.SC_FORBIDDEN, "This request has no token of its session.");
        }
    }
}

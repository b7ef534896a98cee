import jakarta.servlet.FilterChain;
import jakarta.servlet.ServletException;
import jakarta.servlet.http.HttpFilter;
import jakarta.servlet.http.HttpServletRequest;
import jakarta.servlet.http.HttpServletResponse;
import jakarta.servlet.http.HttpSession;
import java.io.IOException;

/** Sends whoever has not logged in to the login, which leads back to the page. */
public final class Guard extends HttpFilter {
    static boolean hasLoggedIn(HttpServletRequest request) {
        HttpSession session = request.getSession(false);
        return session != null && session.getAttribute("name") != null;
    }

    @Override
    protected void doFilter(HttpServletRequest request, HttpServletResponse response, FilterChain chain) throws IOException, ServletException {
        if (hasLoggedIn(request)) {
            chain.doFilter(request, response);
        } else {
            Site.redirect(response, request.getServletPath().equals("/upload") ? "login?next=/upload" : "login?next=/courts");
        }
    }
}

import jakarta.servlet.RequestDispatcher;
import jakarta.servlet.annotation.WebServlet;
import jakarta.servlet.http.HttpServlet;
import jakarta.servlet.http.HttpServletRequest;
import jakarta.servlet.http.HttpServletResponse;
import java.io.IOException;
import java.io.PrintWriter;

/** Says what went wrong, by whatever method the faulty request asked. */
@WebServlet("/oops")
public final class Oops extends HttpServlet {
    @Override
    protected void service(HttpServletRequest request, HttpServletResponse response) throws IOException {
        Object code = request.getAttribute(RequestDispatcher.ERROR_STATUS_CODE);
        Object message = request.getAttribute(RequestDispatcher.ERROR_MESSAGE);
        PrintWriter page = Site.begin(request, response, "courts", message == null ? "" : message.toString());
        page.print("</p><h1>" + (code == null ? 500 : code) + "</h1>");
    }
}

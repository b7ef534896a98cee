import jakarta.servlet.annotation.WebServlet;
import jakarta.servlet.http.HttpServlet;
import jakarta.servlet.http.HttpServletRequest;
import jakarta.servlet.http.HttpServletResponse;
import jakarta.servlet.http.HttpSession;
import java.io.IOException;
import java.io.PrintWriter;

/** Shows the slots that a member has booked; a POST books one, and the next page says how it went. */
@WebServlet("/courts")
public final class Courts extends HttpServlet {
    @Override
    protected void doGet(HttpServletRequest request, HttpServletResponse response) throws IOException {
        HttpSession session = request.getSession();
        PrintWriter page = Site.begin(request, response, "courts", Site.takeFlash(session));
        page.print(Language.say(request, Language.COURTS, Language.COURTS_DE));
        page.print(Csrf.token(session) + "\"></form><ul>");
        for (Slots.Slot slot : Slots.of(session)) {
            page.print("<li>" + slot.court() + ", " + slot.hour() + ":00");
        }
        page.print("</ul>");
    }

    @Override
    protected void doPost(HttpServletRequest request, HttpServletResponse response) {
        String fault = Slots.book(request, Site.number(request, "court"), Site.number(request, "hour"));
        String said = fault != null ? fault : Language.say(request, Language.BOOKED, Language.BOOKED_DE);
        request.getSession().setAttribute("flash", said);
        Site.redirect(response, "courts");
    }
}

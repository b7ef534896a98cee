import jakarta.servlet.annotation.WebServlet;
import jakarta.servlet.http.HttpServlet;
import jakarta.servlet.http.HttpServletRequest;
import jakarta.servlet.http.HttpServletResponse;
import java.io.IOException;

/** Shows the league. */
@WebServlet("/league")
public final class League extends HttpServlet {
    private static final String TEAMS = "<tr><td>Serve &amp; Volley<td>21<tr><td>Lobs<td>18<tr><td>Aces<td>4</table>";

    @Override
    protected void doGet(HttpServletRequest request, HttpServletResponse response) throws IOException {
        Site.begin(request, response, "league", "").print(Language.say(request, Language.LEAGUE, Language.LEAGUE_DE) + TEAMS);
    }
}

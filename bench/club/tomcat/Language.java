import jakarta.servlet.annotation.WebServlet;
import jakarta.servlet.http.Cookie;
import jakarta.servlet.http.HttpServlet;
import jakarta.servlet.http.HttpServletRequest;
import jakarta.servlet.http.HttpServletResponse;
import java.io.IOException;

/** What stands on the pages in one language or the other; keeps the language of the parameter "to" in a cookie, and leads back. */
@WebServlet("/lang")
public final class Language extends HttpServlet {
    static final String LINKS =
        "/\"><meta name=viewport content=\"width=device-width\"><link rel=stylesheet href=club.css><link rel=icon href=ball.svg><body lang=en><nav><a href=courts>Courts</a> <a href=league>League</a> <a href=upload>Upload</a> <a href=\"lang?to=de&amp;next=/";
    static final String LINKS_DE =
        "/\"><meta name=viewport content=\"width=device-width\"><link rel=stylesheet href=club.css><link rel=icon href=ball.svg><body lang=de><nav><a href=courts>Plätze</a> <a href=league>Liga</a> <a href=upload>Hochladen</a> <a href=\"lang?to=en&amp;next=/";
    static final String LOGIN =
        "</p><h1>Log in</h1><form method=post action=login><label>Name <input name=name required autocomplete=username></label> <label>Password <input name=password type=password required autocomplete=current-password></label> <button>Log in</button><input type=hidden name=next value=\"";
    static final String LOGIN_DE =
        "</p><h1>Anmelden</h1><form method=post action=login><label>Name <input name=name required autocomplete=username></label> <label>Passwort <input name=password type=password required autocomplete=current-password></label> <button>Anmelden</button><input type=hidden name=next value=\"";
    static final String COURTS =
        "</p><h1>Your courts</h1><form method=post action=courts><label>Court <input name=court type=number min=1 max=4 required></label> <label>Hour <input name=hour type=number min=8 max=21 required></label> <button>Book</button> <button formaction=logout formnovalidate>Log out</button><input type=hidden name=csrf value=\"";
    static final String COURTS_DE =
        "</p><h1>Ihre Plätze</h1><form method=post action=courts><label>Platz <input name=court type=number min=1 max=4 required></label> <label>Uhr <input name=hour type=number min=8 max=21 required></label> <button>Buchen</button> <button formaction=logout formnovalidate>Abmelden</button><input type=hidden name=csrf value=\"";
    static final String UPLOAD =
        "</p><h1>Your list</h1><form method=post enctype=\"multipart/form-data\" action=upload><input type=hidden name=csrf value=\"";
    static final String UPLOAD_DE =
        "</p><h1>Ihre Liste</h1><form method=post enctype=\"multipart/form-data\" action=upload><input type=hidden name=csrf value=\"";
    static final String LEAGUE =
        "</p><h1>League</h1><table><tr><th>Team<th>Points";
    static final String LEAGUE_DE =
        "</p><h1>Liga</h1><table><tr><th>Mannschaft<th>Punkte";
    static final String BOOKED =
        "Your court is booked.";
    static final String BOOKED_DE =
        "Der Platz ist gebucht.";

    /** The text in the language of a request: German if its cookie "lang" is "de", else English. */
    static String say(HttpServletRequest request, String english, String german) {
        Cookie[] cookies = request.getCookies();
        for (Cookie cookie : cookies == null ? new Cookie[0] : cookies) {
            if (cookie.getName().equals("lang")) {
                return cookie.getValue().equals("de") ? german : english;
            }
        }
        return english;
    }

    /** The page of the club that the parameter "next" names, or that of the courts. */
    static String nextOf(HttpServletRequest request) {
        String next = Site.text(request, "next");
        boolean isOwn = next.matches("/[!$-/:;=?@_~0-9A-Za-z]*") && !next.matches("(?i).*/([/.]|%2e).*");
        return isOwn ? next : "/courts";
    }

    @Override
    protected void doGet(HttpServletRequest request, HttpServletResponse response) throws IOException {
        Cookie cookie = new Cookie("lang", Site.text(request, "to").equals("de") ? "de" : "en");
        cookie.setPath(request.getContextPath());
        cookie.setMaxAge(31_536_000);
        cookie.setHttpOnly(true);
        response.addCookie(cookie);
        Site.redirect(response, request.getContextPath() + nextOf(request));
    }
}

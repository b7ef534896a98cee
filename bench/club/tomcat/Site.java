import jakarta.servlet.http.HttpServletRequest;
import jakarta.servlet.http.HttpServletResponse;
import jakarta.servlet.http.HttpSession;
import java.io.IOException;
import java.io.PrintWriter;

/** What all pages share. */
final class Site {
    private Site() {
    }

    /** A text as HTML that shows it. */
    static String escape(String text) {
        return text.replace("&", "&amp;").replace("<", "&lt;").replace(">", "&gt;").replace("\"", "&quot;").replace("'", "&#39;");
    }

    /** The value of the first parameter of a name, or an empty text. */
    static String text(HttpServletRequest request, String name) {
        String text = request.getParameter(name);
        return text == null ? "" : text;
    }

    /** A number that a form has, or 0. */
    static long number(HttpServletRequest request, String name) {
        try {
            return Long.parseUnsignedLong(text(request, name));
        } catch (NumberFormatException fault) {
            return 0;
        }
    }

    static void redirect(HttpServletResponse response, String to) {
        response.setStatus(HttpServletResponse.SC_SEE_OTHER);
        response.setHeader("Location", to);
    }

    /** Begins the page of a name, up to the text that it says first. */
    static PrintWriter begin(HttpServletRequest request, HttpServletResponse response, String here, String said) throws IOException {
        response.setContentType("text/html;charset=utf-8");
        PrintWriter page = response.getWriter();
        page.print("<!DOCTYPE html><meta charset=utf-8><title>Tennis</title><base href=\"");
        page.print(escape(request.getContextPath()));
        page.print(Language.say(request, Language.LINKS, Language.LINKS_DE));
        page.print(here);
        page.print("\">English / Deutsch</a></nav><p role=status>");
        page.print(escape(said));
        return page;
    }

    /** What is to be said once, which is then forgotten. */
    static String takeFlash(HttpSession session) {
        synchronized (session) {
            String flash = (String) session.getAttribute("flash");
            session.removeAttribute("flash");
            return flash == null ? "" : flash;
        }
    }
}

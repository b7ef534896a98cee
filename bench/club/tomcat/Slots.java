import jakarta.servlet.http.HttpServletRequest;
import jakarta.servlet.http.HttpSession;
import java.util.ArrayList;
import java.util.List;

/** The slots that members book: an hour of a court each. */
final class Slots {
    private Slots() {
    }

    record Slot(long court, long hour) implements java.io.Serializable {
    }

    @SuppressWarnings("unchecked")
    static List<Slot> of(HttpSession session) {
        Object slots = session.getAttribute("slots");
        return slots == null ? List.of() : (List<Slot>) slots;
    }

    /** Books a slot, or gives why it can't be booked. */
    static String book(HttpServletRequest request, long court, long hour) {
        if (court < 1 || court > 4 || hour < 8 || hour > 21) {
            return Language.say(request, "There is no such court.", "Kein solcher Platz.");
        }
        HttpSession session = request.getSession();
        synchronized (session) {
            List<Slot> slots = new ArrayList<>(of(session));
            Slot slot = new Slot(court, hour);
            if (slots.contains(slot)) {
                return Language.say(request, "You have that court.", "Den haben Sie schon.");
            }
            slots.add(slot);
            session.setAttribute("slots", slots);
            return null;
        }
    }
}

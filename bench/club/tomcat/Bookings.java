import com.google.gson.Gson;
import com.google.gson.JsonElement;
import com.google.gson.JsonObject;
import com.google.gson.JsonParseException;
import com.google.gson.JsonParser;
import com.google.gson.JsonPrimitive;
import jakarta.servlet.annotation.WebServlet;
import jakarta.servlet.http.HttpServlet;
import jakarta.servlet.http.HttpServletRequest;
import jakarta.servlet.http.HttpServletResponse;
import java.io.IOException;
import java.nio.charset.StandardCharsets;
import java.util.Map;

/** Answers the slots that a member has booked as JSON; a POST of an object books a slot. */
@WebServlet("/api/bookings")
public final class Bookings extends HttpServlet {
    private static void send(HttpServletResponse response, int status, Object value) throws IOException {
        response.setStatus(status);
        response.setContentType("application/json");
        response.getOutputStream().write(new Gson().toJson(value).getBytes(StandardCharsets.UTF_8));
    }

    private static void sendError(HttpServletResponse response, int status, String why) throws IOException {
        send(response, status, Map.of("error", why));
    }

    private static long number(JsonElement value, String name) {
        if (value instanceof JsonObject object && object.get(name) instanceof JsonPrimitive member && member.isNumber()) {
            try {
                return Long.parseUnsignedLong(member.getAsString());
            } catch (NumberFormatException fault) {
                return 0;
            }
        }
        return 0;
    }

    /** The value that a request brings; none if it was answered. */
    private static JsonElement read(HttpServletRequest request, HttpServletResponse response) throws IOException {
        String type = request.getContentType();
        if (type == null || !type.split(";")[0].trim().equalsIgnoreCase("application/json")) {
            sendError(response, HttpServletResponse.SC_UNSUPPORTED_MEDIA_TYPE, "the content type is not application/json");
            return null;
        }
        try {
            return JsonParser.parseString(new String(request.getInputStream().readAllBytes(), StandardCharsets.UTF_8));
        } catch (JsonParseException fault) {
            sendError(response, HttpServletResponse.SC_BAD_REQUEST, "the body is not JSON");
            return null;
        }
    }

    private static void list(HttpServletRequest request, HttpServletResponse response, int status) throws IOException {
        send(response, status, Slots.of(request.getSession()));
    }

    @Override
    protected void doGet(HttpServletRequest request, HttpServletResponse response) throws IOException {
        if (!Guard.hasLoggedIn(request)) {
            sendError(response, HttpServletResponse.SC_UNAUTHORIZED, "log in first");
            return;
        }
        list(request, response, HttpServletResponse.SC_OK);
    }

    @Override
    protected void doPost(HttpServletRequest request, HttpServletResponse response) throws IOException {
        if (!Guard.hasLoggedIn(request)) {
            sendError(response, HttpServletResponse.SC_UNAUTHORIZED, "log in first");
            return;
        }
        JsonElement value = read(request, response);
        if (value == null) {
            return;
        }
        String fault = Slots.book(request, number(value, "court"), number(value, "hour"));
        if (fault != null) {
            sendError(response, 422, fault);
            return;
        }
        list(request, response, HttpServletResponse.SC_CREATED);
    }
}

import java.util.ArrayList;
import java.util.List;
import java.util.Map;

class A {
    interface Shape { }
    static class Dot implements Shape { }
    static class Bad extends RuntimeException { }
    static class Worse extends Exception { }

    Shape[] all = { new Dot(), (Dot) null };
    static final List<Dot> DOTS = new ArrayList<Dot>();

    static <T> T same(T it) {
        T local = it;
        return A.<T>again(local);
    }
    static <U> U again(U it) {
        return it;
    }
    int count(Object value, List<? extends Shape> shapes, Map<String, List<Dot[]>> map) throws Worse {
        int number = 0;
        for (Shape shape : shapes) {
            if (shape instanceof Dot) {
                Dot dot = (Dot) shape;
                number++;
            }
        }
        for (Dot[] dots = new Dot[3]; number < dots.length; number++) { }
        try {
            if (value instanceof List<?>) {
                throw new Worse();
            }
        } catch (Bad caught) {
            number = 2;
        } catch (NullPointerException | ClassCastException caught) {
            number = 3;
        } finally {
            final Dot[][] last = new Dot[][] { null, { null } };
        }
        List<Shape> made = new ArrayList<>();
        return number;
    }
}

/** Calls go to the object's class, then upward. */
class VirtualCalls {
    static abstract class Shape {
        abstract int area();
        String name() { return "shape"; }
        String told() { return name() + " " + area(); }
    }

    static class Square extends Shape {
        final int side;
        Square(int side) { this.side = side; }
        int area() { return side * side; }
        String name() { return "square"; }
    }

    static class Unit extends Square {
        Unit() { super(1); }
        String told() { return "unit " + super.told(); }
    }

    static class Odd extends Unit {
        int area() { return super.area() + 1; }
        String name() { return "odd " + super.name(); }
    }

    static class Plain extends Shape {
        int area() { return 0; }
    }

    public static void main(String[] args) {
        Shape[] shapes = { new Square(5), new Unit(), new Odd(), new Plain() };
        for (Shape shape : shapes) {
            Out.line(shape.told());
        }
        Shape none = null;
        try {
            Out.line(none.told());
        } catch (NullPointerException e) {
            Out.line("null");
        }
    }
}

/** Expressions as objects, walked by visitors. */
class Visitors {
    interface Visitor<R> { R number(int value); R sum(Expr a, Expr b); R product(Expr a, Expr b); }
    interface Expr { <R> R accept(Visitor<R> v); }
    static class Num implements Expr {
        final int value;
        Num(int value) { this.value = value; }
        public <R> R accept(Visitor<R> v) { return v.number(value); }
    }
    static class Sum implements Expr {
        final Expr a; final Expr b;
        Sum(Expr a, Expr b) { this.a = a; this.b = b; }
        public <R> R accept(Visitor<R> v) { return v.sum(a, b); }
    }
    static class Product implements Expr {
        final Expr a; final Expr b;
        Product(Expr a, Expr b) { this.a = a; this.b = b; }
        public <R> R accept(Visitor<R> v) { return v.product(a, b); }
    }
    static class Value implements Visitor<Integer> {
        public Integer number(int value) { return value; }
        public Integer sum(Expr a, Expr b) { return a.accept(this) + b.accept(this); }
        public Integer product(Expr a, Expr b) { return a.accept(this) * b.accept(this); }
    }
    static class Text implements Visitor<String> {
        public String number(int value) { return String.valueOf(value); }
        public String sum(Expr a, Expr b) { return "(" + a.accept(this) + " + " + b.accept(this) + ")"; }
        public String product(Expr a, Expr b) { return a.accept(this) + " * " + b.accept(this); }
    }

    public static void main(String[] args) {
        Expr e = new Product(new Sum(new Num(2), new Num(3)), new Sum(new Num(-4), new Product(new Num(5), new Num(600))));
        Out.line(e.accept(new Text()));
        Out.line(e.accept(new Value()));
    }
}

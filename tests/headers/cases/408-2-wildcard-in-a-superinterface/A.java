interface A extends Comparable<? extends A> { }

abstract class A implements Comparable<?> { }

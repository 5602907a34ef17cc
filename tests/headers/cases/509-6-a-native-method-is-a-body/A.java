class A implements Numbered { }
interface Numbered {
    int hashCode();
    boolean equals(Object other);
    String toString();
}

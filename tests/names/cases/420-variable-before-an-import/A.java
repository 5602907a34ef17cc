import java.util.List;

class A<List> {
    List known;
    List.Nope unknown;
}

import java.util.ArrayList;
import java.util.List;

class Hanoi {
    final List<List<Integer>> pegs = new ArrayList<List<Integer>>();
    int moves;

    Hanoi(int n) {
        for (int peg = 0; peg < 3; peg++) pegs.add(new ArrayList<Integer>());
        for (int disc = n; disc > 0; disc--) pegs.get(0).add(disc);
    }

    void move(int n, int from, int to) {
        if (n == 0) return;
        int other = 3 - from - to;
        move(n - 1, from, other);
        List<Integer> source = pegs.get(from);
        Integer disc = source.remove(source.size() - 1);
        List<Integer> target = pegs.get(to);
        if (!target.isEmpty() && target.get(target.size() - 1) < disc) throw new IllegalStateException();
        target.add(disc);
        moves++;
        move(n - 1, other, to);
    }

    public static void main(String[] args) {
        Hanoi game = new Hanoi(8);
        game.move(8, 0, 2);
        Out.line(game.moves);
        for (List<Integer> peg : game.pegs) Out.line(peg.size());
    }
}

/** A list of nodes that is turned round, and a ring. */
class LinkedNodes {
    int value;
    LinkedNodes next;

    LinkedNodes(int value, LinkedNodes next) {
        this.value = value;
        this.next = next;
    }

    static LinkedNodes turned(LinkedNodes list) {
        LinkedNodes made = null;
        while (list != null) {
            LinkedNodes next = list.next;
            list.next = made;
            made = list;
            list = next;
        }
        return made;
    }

    public static void main(String[] args) {
        LinkedNodes list = null;
        for (int n = 0; n < 1000; n++) {
            list = new LinkedNodes(n, list);
        }
        Out.line(list.value);
        list = turned(list);
        Out.line(list.value);
        long sum = 0;
        for (LinkedNodes at = list; at != null; at = at.next) {
            sum = sum * 3 + at.value;
        }
        Out.line(sum);
        // every third one of a ring leaves it
        LinkedNodes last = new LinkedNodes(41, null);
        LinkedNodes ring = last;
        for (int n = 40; n > 0; n--) {
            ring = new LinkedNodes(n, ring);
        }
        last.next = ring;
        LinkedNodes at = last;
        while (at.next != at) {
            at = at.next.next;
            at.next = at.next.next;
        }
        Out.line(at.value);
    }
}

class Trees {
    static class Node {
        final int key;
        Node left;
        Node right;
        Node(int key) { this.key = key; }
    }

    static Node insert(Node node, int key) {
        if (node == null) return new Node(key);
        if (key < node.key) node.left = insert(node.left, key);
        else if (key > node.key) node.right = insert(node.right, key);
        return node;
    }

    static int height(Node node) {
        if (node == null) return 0;
        int left = height(node.left);
        int right = height(node.right);
        return 1 + (left > right ? left : right);
    }

    static long walk(Node node, long sum) {
        return node == null ? sum : walk(node.right, walk(node.left, sum) * 31 + node.key);
    }

    public static void main(String[] args) {
        Node root = null;
        int state = 7;
        for (int n = 0; n < 2000; n++) {
            state = state * 1664525 + 1013904223;
            root = insert(root, state >>> 20);
        }
        Out.line(height(root));
        Out.line(walk(root, 0));
    }
}

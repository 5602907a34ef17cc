class Node { Object value; Node next; Node(Object v, Node n) { value = v; next = n; } }
class Stack { Node top; int size; void push(Object o) { top = new Node(o, top); size++; } Object pop() { Object v = top.value; top = top.next; size--; return v; } }
class Main { public static void main(String[] args) { Stack s = new Stack(); for (int i = 0; i < 5; i++) s.push(i * i); s.push("end"); while (s.size > 0) System.out.println(s.pop()); s.pop(); } }

class A { B<String, String> field; }

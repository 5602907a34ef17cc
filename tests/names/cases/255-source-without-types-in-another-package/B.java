package q;

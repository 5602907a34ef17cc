package p;

import java.util.List; import java.util.Map;
import java.util.Set; import java.util.Sets;
import java.util.Lists;

class A { }

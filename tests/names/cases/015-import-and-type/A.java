package p;

import java.util.List;
interface List { }

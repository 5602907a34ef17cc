package some.where;

import some.where.*;
import java.io.*;

class A {
    A field;
    IOException other;
}

package some.where;

import java.*;
import some.*;
import some.where.*;

class A {
    A field;
}

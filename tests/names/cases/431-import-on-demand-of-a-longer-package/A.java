package some.where;

import some.where.*;
import some.where.there.*;

class A { }

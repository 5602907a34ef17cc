import java.util.ArrayList;
class A extends ArrayList<?> { }

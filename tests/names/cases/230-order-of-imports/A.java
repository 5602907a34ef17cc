import java.util.Lists; import java.util.List;
interface List { }

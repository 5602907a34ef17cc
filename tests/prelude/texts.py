"""The types of the prelude's Java texts, and what javac asks of a platform beside them."""
import os
import re

HERE = os.path.dirname(os.path.abspath(__file__))
TEXTS = os.path.join(HERE, "..", "..", "crates", "jc_prelude", "src")
FILES = ["lang", "thrown", "streams", "collections"]

PLATFORM = {
    "java/lang/annotation/Annotation": "package java.lang.annotation; public interface Annotation { }",
    "java/lang/Deprecated": "package java.lang; public @interface Deprecated { }",
    "java/lang/Override": "package java.lang; public @interface Override { }",
    "java/lang/SafeVarargs": "package java.lang; public @interface SafeVarargs { }",
    "java/lang/SuppressWarnings": "package java.lang; public @interface SuppressWarnings { String[] value(); }",
    "java/lang/FunctionalInterface": "package java.lang; public @interface FunctionalInterface { }",
    "java/lang/Class": "package java.lang; public final class Class<T> { }",
    "java/lang/Cloneable": "package java.lang; public interface Cloneable { }",
    "java/io/Serializable": "package java.io; public interface Serializable { }",
}


def types():
    """The package, the imports, the name and the text of each type at the top."""
    for file in FILES:
        with open(os.path.join(TEXTS, file + ".rt"), encoding="utf-8") as stream:
            text = re.search(r'r#"(.*)"#;', stream.read(), re.S).group(1)
        package = re.search(r"package ([\w.]+);", text).group(1)
        imports = re.findall(r"import [\w.]+;", text)
        for found in re.finditer(r"^public (?:final |abstract )*(?:class|interface) (\w+).*?^}$", text, re.S | re.M):
            yield package, imports, found.group(1), found.group(0)


def write(path, text):
    os.makedirs(os.path.dirname(path), exist_ok=True)
    with open(path, "w", encoding="utf-8") as stream:
        stream.write(text)


def write_all(room):
    """Writes each type into a file below the folder, and gives the paths: those of the platform, then those of the prelude."""
    platform, prelude = [], []
    for path, text in PLATFORM.items():
        platform.append(f"{room}/{path}.java")
        write(platform[-1], text)
    for package, imports, name, text in types():
        prelude.append(f"{room}/{package.replace('.', '/')}/{name}.java")
        write(prelude[-1], f"package {package};\n" + "\n".join(imports) + f"\n{text}\n")
    return platform, prelude

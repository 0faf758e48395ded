"""The Java classes beside the random methods of checks/machine_as_the_jvm, as source.

`Log` tells of each call and answers it, `Floats` does float operations and tells of them, and `Drive` runs methods. The fields of a
class are named x and s throughout, which Java's language does not allow: here they have numbers behind them, which `renamed` takes
away from the class file.
"""
import re

import machine_classes as classes

JAVA = {"I": "int", "J": "long", "F": "float", "D": "double", "Z": "boolean", "B": "byte", "C": "char", "S": "short", "V": "void"}
NUMBERED = re.compile(rb"([xs])__\d+")
CLASSES = {"Top": "implements Face", "Mid": "extends Top", "Low": "extends Mid", "X": "extends RuntimeException", "Y": "extends X"}
BINARY = {98: "+", 102: "-", 106: "*", 110: "/", 114: "%"}

LOG = """
import java.lang.invoke.*;
import java.util.*;

public class Log {
    static StringBuilder out = new StringBuilder();
    static IdentityHashMap<Object, Integer> numbers;
    static Object[] pool;
    static Random random;
    static int left;
    static boolean stopped;
    static final int[] INTS = { 0, 1, 1, 2, 3, -1, 7, 32, 127, 128, -128, 255, 65535, -32768, Integer.MAX_VALUE, Integer.MIN_VALUE };
    static final long[] LONGS = { 0, 1, 2, -1, 31, 64, 1L << 32, -(1L << 33) + 5, Long.MAX_VALUE, Long.MIN_VALUE };
    static final float[] FLOATS = { 0, -0f, 1, -1.5f, 1e10f, Float.NaN, Float.NEGATIVE_INFINITY, Float.MIN_VALUE };
    static final double[] DOUBLES = { 0, -0d, 1, -2.5, 1e100, Double.NaN, Double.POSITIVE_INFINITY, Double.MAX_VALUE };

    static String shown(Object o) {
        if (o == null) return "null";
        if (o instanceof Integer) return "int:" + o;
        if (o instanceof Long) return "long:" + o;
        if (o instanceof Float) return "flt:" + Integer.toUnsignedString(Float.floatToRawIntBits((Float) o));
        if (o instanceof Double) return "dbl:" + Long.toUnsignedString(Double.doubleToRawLongBits((Double) o));
        if (o instanceof String) return "str:" + o;
        if (o instanceof MethodHandle) return "handle";
        if (o instanceof MethodType) return "type:" + ((MethodType) o).toMethodDescriptorString();
        if (o instanceof Class) return "class:" + ((Class<?>) o).getName().replace('.', '/');
        Integer number = numbers.get(o);
        if (number == null) numbers.put(o, number = numbers.size());
        return "obj:" + number;
    }

    static void event(String head, Object... operands) {
        if (stopped) return;
        out.append("event ").append(head);
        for (Object o : operands) out.append(' ').append(shown(o));
        out.append('\\n');
    }

    static void note(String head, Object result, Object... operands) {
        if (stopped) return;
        event(head, operands);
        out.append("answer ").append(shown(result)).append('\\n');
    }

    @SuppressWarnings("unchecked")
    static <T extends Throwable> void toss(Throwable t) throws T { throw (T) t; }

    static Object value(char kind, Class<?> of) {
        int i = random.nextInt(2) == 0 ? random.nextInt(5) - 1 : INTS[random.nextInt(INTS.length)];
        switch (kind) {
            case 'V': return null;
            case 'Z': return i & 1;
            case 'B': return (int) (byte) i;
            case 'C': return (int) (char) i;
            case 'S': return (int) (short) i;
            case 'I': return i;
            case 'J': return LONGS[random.nextInt(LONGS.length)];
            case 'F': return FLOATS[random.nextInt(FLOATS.length)];
            case 'D': return DOUBLES[random.nextInt(DOUBLES.length)];
        }
        if (random.nextInt(10) == 0) return null;
        Object o = pool[random.nextInt(pool.length)];
        for (int tries = 0; tries < 200 && !of.isInstance(o); tries++) o = pool[random.nextInt(pool.length)];
        return of.isInstance(o) ? o : null;
    }

    static Object zero(char kind) {
        return kind == 'J' ? (Object) 0L : kind == 'F' ? (Object) 0f : kind == 'D' ? (Object) 0d : kind == 'L' || kind == 'V' ? null : (Object) 0;
    }

    static Object ask(String head, char kind, Class<?> of, Object... operands) {
        event(head, operands);
        if (!stopped && left == 0) stopped = true;
        if (stopped) return zero(kind);
        left--;
        if (random.nextInt(16) == 0) {
            Object thrown = pool[5 + random.nextInt(4)];
            out.append("throw ").append(shown(thrown)).append('\\n');
            Log.<RuntimeException>toss((Throwable) thrown);
        }
        Object answer = value(kind, of);
        // What a call without result is answered makes no difference.
        out.append("answer ").append(kind == 'V' ? "int:7" : shown(answer)).append('\\n');
        return answer;
    }

    static Object dynamic(String head, char kind, Class<?> of, Object[] operands) { return ask(head, kind, of, operands); }

    public static CallSite boot(MethodHandles.Lookup lookup, String name, MethodType type) throws Exception {
        MethodType general = MethodType.methodType(Object.class, String.class, char.class, Class.class, Object[].class);
        MethodHandle asked = MethodHandles.lookup().findStatic(Log.class, "dynamic", general);
        String result = type.returnType().descriptorString();
        char kind = result.length() == 1 ? result.charAt(0) : 'L';
        String head = "186 " + name + type.toMethodDescriptorString();
        asked = MethodHandles.insertArguments(asked, 0, head, kind, type.returnType());
        return new ConstantCallSite(asked.asCollector(Object[].class, type.parameterCount()).asType(type));
    }

    static void monitor194(Object o) { event("194", o); }
    static void monitor195(Object o) { event("195", o); }
"""

DRIVE = """
import java.lang.reflect.*;
import java.nio.file.*;
import java.util.*;

public class Drive {
    static Object made(String[] words, Class<?> here) throws Exception {
        if (words[0].equals("array")) return Array.newInstance(Class.forName(words[1].replace('/', '.')).getComponentType(), Integer.parseInt(words[2]));
        Class<?> of = words[1].equals("G") ? here : Class.forName(words[1].replace('/', '.'));
        for (Constructor<?> c : of.getDeclaredConstructors()) {
            if (c.getParameterCount() == 1 && c.getParameterTypes()[0] == Log.class) {
                c.setAccessible(true);
                return c.newInstance((Object) null);
            }
        }
        return of.getDeclaredConstructor().newInstance();
    }

    static Object argument(String word, Class<?> of) {
        String number = word.substring(word.indexOf(':') + 1);
        if (word.startsWith("int:")) return Integer.parseInt(number);
        if (word.startsWith("long:")) return Long.parseLong(number);
        if (word.startsWith("flt:")) return Float.intBitsToFloat(Integer.parseUnsignedInt(number));
        if (word.startsWith("dbl:")) return Double.longBitsToDouble(Long.parseUnsignedLong(number));
        return word.equals("null") ? null : Log.pool[Integer.parseInt(number)];
    }

    static Object widened(Object o) {
        if (o instanceof Boolean) return (Boolean) o ? 1 : 0;
        if (o instanceof Character) return (int) (Character) o;
        return o instanceof Byte || o instanceof Short ? (Object) ((Number) o).intValue() : o;
    }

    static void clear(String name) throws Exception {
        for (Field f : Class.forName(name).getDeclaredFields()) {
            if (!Modifier.isStatic(f.getModifiers())) continue;
            f.setAccessible(true);
            if (f.getType() == boolean.class) f.setBoolean(null, false);
            else if (f.getType() == char.class) f.setChar(null, (char) 0);
            else if (f.getType().isPrimitive()) f.setByte(null, (byte) 0);
            else f.set(null, null);
        }
    }

    static void run(Class<?> here, Method m, String[] words, List<String[]> objects) throws Exception {
        for (String name : new String[] { "Top", "Mid", "Low" }) clear(name);
        Log.numbers = new IdentityHashMap<>();
        Log.pool = new Object[objects.size()];
        for (int i = 0; i < Log.pool.length; i++) {
            Log.pool[i] = made(objects.get(i), here);
            Log.numbers.put(Log.pool[i], i);
        }
        Log.random = new Random(Long.parseLong(words[2]));
        Log.left = Integer.parseInt(words[3]);
        Log.stopped = false;
        int first = Modifier.isStatic(m.getModifiers()) ? 4 : 5;
        Object target = first == 4 ? null : argument(words[4], null);
        Object[] given = new Object[words.length - first];
        for (int i = 0; i < given.length; i++) given[i] = argument(words[first + i], m.getParameterTypes()[i]);
        String ending;
        try {
            Object result = m.invoke(target, given);
            ending = m.getReturnType() == void.class ? "returned" : "returned " + Log.shown(widened(result));
        } catch (InvocationTargetException e) {
            ending = "threw " + Log.shown(e.getCause()) + " " + e.getCause().getClass().getName().replace('.', '/');
        }
        Log.out.append(Log.stopped ? "goes on" : ending).append('\\n');
    }

    public static void main(String[] args) throws Exception {
        List<String[]> objects = new ArrayList<>();
        Class<?> here = null;
        Map<String, Method> methods = new HashMap<>();
        for (String line : Files.readAllLines(Paths.get(args[0]))) {
            String[] words = line.split(" ");
            if (words[0].equals("class")) {
                here = Class.forName(words[1]);
                methods.clear();
                for (Method m : here.getDeclaredMethods()) {
                    m.setAccessible(true);
                    methods.put(m.getName(), m);
                }
            } else if (words[0].equals("run")) {
                run(here, methods.get(words[1]), words, objects);
            } else {
                objects.add(words);
            }
        }
        Files.write(Paths.get(args[1]), Log.out.toString().getBytes("UTF-8"));
    }
}
"""


def java_of(descriptor):
    if descriptor[0] == "[":
        return java_of(descriptor[1:]) + "[]"
    return descriptor[1:-1].replace("/", ".") if descriptor[0] == "L" else JAVA[descriptor]


def called(method):
    """The body of a method that is called."""
    sort, owner, name, params, result = method
    head = f"{classes.SORTS[sort]} {owner}.{name}({''.join(params)}){result}"
    kind = result if len(result) == 1 else "L"
    operands = [*([] if sort == "static" else ["this"]),
                *(f"a{i} ? 1 : 0" if of == "Z" else f"(int) a{i}" if of in "BCS" else f"a{i}" for i, of in enumerate(params))]
    # an array is one operand
    words = "".join(f", (Object) ({word})" for word in operands)
    of = f"{java_of(result)}.class" if kind == "L" else "null"
    asked = f'Log.ask("{head}", \'{kind}\', {of}{words})'
    if result == "V":
        return f"{asked};"
    if result == "Z":
        return f"return (Integer) {asked} != 0;"
    if result in "BCS":
        return f"return ({JAVA[result]}) (int) (Integer) {asked};"
    return f"return ({'Integer' if result == 'I' else java_of(result)}) {asked};"


def source_of(method, inside):
    """A method that is called, or a constructor."""
    sort, owner, name, params, result = method
    given = ", ".join(f"{java_of(of)} a{i}" for i, of in enumerate(params))
    if name == "<init>":
        above = "super((Log) null); " if owner in ("Mid", "Low", "Y") else ""
        return f"    public {owner}({given}) {{ {above}{called(method)} }}\n"
    static = "static " if sort == "static" else ""
    return f"    public {static}{java_of(result)} {name}({given}) {{ {called(method)} }}\n"


def class_source(name):
    """One of the classes with fields."""
    fields = ""
    for table, word, static in ((classes.FIELDS, "x", ""), (classes.STATICS, "s", "static ")):
        fields += "".join(f"    public {static}{java_of(of)} {word}__{i};\n" for i, of in enumerate(table.get(name, [])))
    quiet = f"    public {name}(Log quiet) {{ {'super(quiet); ' if name in ('Mid', 'Low', 'Y') else ''}}}\n"
    bodies = "".join(source_of(method, name) for method in classes.METHODS if method[1] == name)
    if name == "Top":
        bodies += "".join(source_of(method, name) for method in classes.METHODS if method[1] == "Face")
    return f"public class {name} {CLASSES[name]} {{\n{fields}{quiet}{bodies}}}\n"


def interface_source():
    lines = [f"    {java_of(result)} {name}({', '.join(f'{java_of(of)} a{i}' for i, of in enumerate(params))});\n"
             for _, owner, name, params, result in classes.METHODS if owner == "Face"]
    return f"public interface Face {{\n{''.join(lines)}}}\n"


def float_source(opcode):
    takes, gives = classes.FLOATS[opcode]
    if opcode - (opcode % 2) in BINARY:
        body = f"a {BINARY[opcode - (opcode % 2)]} b"
    elif opcode in (118, 119):
        body = "-a"
    elif opcode in (149, 151):
        body = "a > b ? 1 : a == b ? 0 : -1"
    elif opcode in (150, 152):
        body = "a < b ? -1 : a == b ? 0 : 1"
    else:
        body = f"({JAVA[gives]}) a"
    names = "ab"[:len(takes)]
    given = ", ".join(f"{JAVA[of]} {name}" for of, name in zip(takes, names))
    told = ", ".join(names)
    return (f"    public static {JAVA[gives]} op{opcode}({given}) {{ {JAVA[gives]} r = {body}; "
            f"Log.note(\"{opcode}\", r, {told}); return r; }}\n")


def sources():
    """Each source file by its name."""
    statics = "".join(source_of(method, "Log") for method in classes.METHODS if method[1] == "Log")
    floats = "".join(float_source(opcode) for opcode in classes.FLOATS)
    return {
        "Log.java": f"{LOG}{statics}}}\n", "Drive.java": DRIVE, "Face.java": interface_source(),
        "Floats.java": f"public class Floats {{\n{floats}}}\n", **{f"{name}.java": class_source(name) for name in CLASSES},
    }


def renamed(data):
    """The bytes of a class file, with the numbers taken off the names of its fields."""
    count, at, parts, index = int.from_bytes(data[8:10], "big"), 10, [data[:10]], 1
    lengths = {3: 5, 4: 5, 5: 9, 6: 9, 7: 3, 8: 3, 9: 5, 10: 5, 11: 5, 12: 5, 15: 4, 16: 3, 17: 5, 18: 5}
    while index < count:
        tag = data[at]
        if tag == 1:
            end = at + 3 + int.from_bytes(data[at + 1:at + 3], "big")
            found = NUMBERED.fullmatch(data[at + 3:end])
            text = found[1] if found else data[at + 3:end]
            parts.append(b"\1" + len(text).to_bytes(2, "big") + text)
        else:
            end = at + lengths[tag]
            parts.append(data[at:end])
        index += 2 if tag in (5, 6) else 1
        at = end
    return b"".join(parts) + data[at:]

public class Log {
    public static void line() {
        System.out.println("log: a line");
    }
}

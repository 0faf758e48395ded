public class Store {
    public static void write() {
        System.out.println("store: written");
    }

    public static void check() {
        System.out.println("store: checked");
    }
}

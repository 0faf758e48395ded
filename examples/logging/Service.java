/** The class that is edited. Both methods log; the script makes one of them quiet. */
public class Service {
    public static void save() {
        Log.line();
        Store.write();
        Log.line();
    }

    public static void audit() {
        Log.line();
        Store.check();
    }
}

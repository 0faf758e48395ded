public class Main {
    public static void main(String[] words) {
        System.out.println("save:");
        Service.save();
        System.out.println("audit:");
        Service.audit();
    }
}

/** A class that `make` compiles. `work` is edited; `count` has a loop, so that its code has frames. */
public class Own {
    static int turns;

    static void turn() {
        turns++;
    }

    static void work() {
        turn();
        turn();
    }

    static int count(int last) {
        int sum = 0;
        for (int i = 1; i <= last; i++) {
            sum += i;
        }
        return sum;
    }

    public static void main(String[] words) {
        work();
        System.out.println("turns " + turns + ", count " + count(4));
    }
}

/** A small stack machine over an int array, with calls and a memory of its own, and what happens to programs that are wrong. */
public class Main {
    static final int PUSH = 0, ADD = 1, SUBTRACT = 2, MULTIPLY = 3, DIVIDE = 4, REMAINDER = 5, DUPLICATE = 6, SWAP = 7, DROP = 8, LOAD = 9, STORE = 10, JUMP = 11,
        JUMP_IF_ZERO = 12, JUMP_IF_NEGATIVE = 13, CALL = 14, RETURN = 15, PRINT = 16, HALT = -1;

    final int[] code;
    final int[] stack = new int[24];
    final int[] calls = new int[16];
    final int[] memory = new int[8];
    int top;
    int depth;
    int steps;

    Main(int[] code) {
        this.code = code;
    }

    int pop() {
        return stack[--top];
    }

    void push(int value) {
        stack[top++] = value;
    }

    void run() {
        for (int pc = 0;; steps++) {
            int operation = code[pc++], a, b;
            switch (operation) {
                case PUSH: push(code[pc++]); break;
                case ADD: push(pop() + pop()); break;
                case SUBTRACT: b = pop(); push(pop() - b); break;
                case MULTIPLY: push(pop() * pop()); break;
                case DIVIDE: b = pop(); push(pop() / b); break;
                case REMAINDER: b = pop(); push(pop() % b); break;
                case DUPLICATE: a = pop(); push(a); push(a); break;
                case SWAP: a = pop(); b = pop(); push(a); push(b); break;
                case DROP: pop(); break;
                case LOAD: push(memory[code[pc++]]); break;
                case STORE: memory[code[pc++]] = pop(); break;
                case JUMP: pc = code[pc]; break;
                case JUMP_IF_ZERO: pc = pop() == 0 ? code[pc] : pc + 1; break;
                case JUMP_IF_NEGATIVE: pc = pop() < 0 ? code[pc] : pc + 1; break;
                case CALL: calls[depth++] = pc + 1; pc = code[pc]; break;
                case RETURN: pc = calls[--depth]; break;
                case PRINT: System.out.print(pop() + " "); break;
                case HALT: return;
                default: throw new IllegalStateException("operation " + operation + " at " + (pc - 1));
            }
        }
    }

    public static void main(String[] args) {
        int[][] programs = {
            {PUSH, 12, STORE, 0, PUSH, 1, LOAD, 0, JUMP_IF_ZERO, 22, LOAD, 0, MULTIPLY, LOAD, 0, PUSH, 1, SUBTRACT, STORE, 0, JUMP, 6, PRINT, HALT},
            {PUSH, 1071, PUSH, 462, DUPLICATE, JUMP_IF_ZERO, 17, STORE, 1, LOAD, 1, REMAINDER, LOAD, 1, SWAP, JUMP, 4, DROP, PRINT, HALT},
            {PUSH, 7, DUPLICATE, PRINT, DUPLICATE, PUSH, 1, SUBTRACT, JUMP_IF_ZERO, 29, DUPLICATE, PUSH, 2, REMAINDER, JUMP_IF_ZERO, 24,
                PUSH, 3, MULTIPLY, PUSH, 1, ADD, JUMP, 2, PUSH, 2, DIVIDE, JUMP, 2, HALT},
            {PUSH, 5, CALL, 5, HALT, DUPLICATE, PRINT, PUSH, 1, SUBTRACT, DUPLICATE, JUMP_IF_NEGATIVE, 15, CALL, 5, RETURN},
            {PUSH, 1, CALL, 2}, {PUSH, 9, JUMP, 0}, {PUSH, 7, PUSH, 0, REMAINDER}, {ADD}, {LOAD, 8}, {JUMP, -7}, {PUSH, 3, PRINT, 50}, {RETURN}, {},
        };
        for (int[] program : programs) {
            Main machine = new Main(program);
            try {
                machine.run();
                System.out.print("halts");
            } catch (ArithmeticException e) {
                System.out.print("divides by zero");
            } catch (ArrayIndexOutOfBoundsException e) {
                System.out.print("leaves its room with " + machine.top + " and " + machine.depth);
            } catch (IllegalStateException e) {
                System.out.print(e.getMessage());
            }
            System.out.println(" after " + machine.steps);
        }
    }
}

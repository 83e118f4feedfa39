/** Queens on a board, with a grid, an enum of marks and strings. */
public class Queens {
    enum Mark { FREE, QUEEN }

    private final Mark[][] board;
    private long count;
    private String first;

    Queens(int size) {
        board = new Mark[size][size];
        for (Mark[] row : board) {
            java.util.Arrays.fill(row, Mark.FREE);
        }
    }

    private boolean isFree(int row, int column) {
        for (int k = 1; k <= row; k++) {
            if (board[row - k][column] == Mark.QUEEN || column >= k && board[row - k][column - k] == Mark.QUEEN
                    || column + k < board.length && board[row - k][column + k] == Mark.QUEEN) {
                return false;
            }
        }
        return true;
    }

    void place(int row) {
        if (row == board.length) {
            first = first == null ? toString() : first;
            count++;
            return;
        }
        for (int column = 0; column < board.length; column++) {
            if (isFree(row, column)) {
                board[row][column] = Mark.QUEEN;
                place(row + 1);
                board[row][column] = Mark.FREE;
            }
        }
    }

    @Override
    public String toString() {
        StringBuilder text = new StringBuilder();
        for (Mark[] row : board.clone()) {
            for (Mark mark : row) {
                text.append(mark == Mark.QUEEN ? 'Q' : '.');
            }
            text.append('\n');
        }
        return text.toString();
    }

    public static void main(String[] args) {
        Queens queens = new Queens(6);
        queens.place(0);
        System.out.print(queens.first + queens.count + "\n");
    }
}

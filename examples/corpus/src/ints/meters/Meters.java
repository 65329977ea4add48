/** Loops over ints. */
class Meters {
    //@ T meet
    static int meet(int left, int right) {
        while (left != right) {
            if (left > right) {
                right++;
            } else {
                left++;
            }
        }
        return left;
    }

    //@ T odometer
    static int odometer(int rounds, int wheel) {
        int turned = 0, place = 0, ticks = 0;
        while (turned < rounds) {
            place++;
            if (place >= wheel) {
                place = 0;
                turned++;
            }
            ticks++;
        }
        return ticks;
    }

    //@ T commonDivisor P P
    static int commonDivisor(int first, int second) {
        while (second != 0) {
            int rest = first % second;
            first = second;
            second = rest;
        }
        return first;
    }

    //@ T bySubtraction 1..MAX 1..MAX | the larger one falls, but stays above 0 only since the two aren't equal
    static int bySubtraction(int first, int second) {
        while (first != second) {
            if (first > second) {
                first -= second;
            } else {
                second -= first;
            }
        }
        return first;
    }

    //@ T halve P
    //@ N halve | -1 becomes -2, and so on down
    static int halve(int number) {
        int steps = 0;
        while (number != 0) {
            number = number % 2 == 0 ? number / 2 : number - 1;
            steps++;
        }
        return steps;
    }

    //@ T throwUp 0..1000 0..1000 | the height rises first, and falls later
    static int throwUp(int height, int speed) {
        int time = 0;
        while (height >= 0) {
            height += speed;
            speed--;
            time++;
        }
        return time;
    }
}

#include <iostream>

int main() {
    std::cout << 2147483648 + 1;  // a literal that is too wide for int is a long
    std::cout << 2147483647
        + 1;  // the sum of two ints is an int, and it overflows here
}

#include <iostream>

// Prints 42 and -3.
int main() {
    std::cout << 40 + 2 << 7 - 10;
}

// `*` needs an operand on its left.
int main() {
    return 1 + * 2;
}

fn main() {
    greet();
}

int main(void)
{
    int a;
    int b;
    a = 1;
    b = 2147483647;
    a = 0;
    return b;
}

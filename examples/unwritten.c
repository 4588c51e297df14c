int main(void)
{
    int count;
    int limit;
    limit = 10;
    return count;
}

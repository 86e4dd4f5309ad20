#define SIZE 4 // the array's length, in a directive
int a[SIZE]; // don't
int main(void)
{
    a[SIZE - 1] = 0; // see /* above
    return 0;
}

int main(void){
  int a[10];
  int i;
  i = 0;
  while (i <= 10){
    a[i] = 0;
    i = i + 1;
  }
  return 0;
}

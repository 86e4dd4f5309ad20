int main(void){
  int a[4];
  int last;
  int share;
  last = 4;
  a[last] = 0;
  share = 100 / last;
  if (share >= last)
    share = 100 / share;
  return 0;
}

int twice(int n){
  return n + n;
}
int half(int n){
  return n / 2;
}
int (*table[2])(int) = { half, twice };
int main(void){
  return table[1](4);
}

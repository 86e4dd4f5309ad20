int main(void){
  int x;
  x = 3;
  return x * 0.5;
}

int main(void){
  int count;
  int mean;
  count = 0;
  if (count != 0)
    mean = 5 / count;
  return 0;
}

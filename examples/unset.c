int main(void){
  int count;
  int mean;
  mean = 100 / count;
  if (count > 0)
    mean = 100 / count;
  return 0;
}

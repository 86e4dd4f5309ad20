/* table of 256 by a byte of a xor: wrong, table is one too short */
extern int getchar(void);
static unsigned long table[255];
int main(void)
{
  unsigned long crc = 0xffffffffUL;
  int c;
  while ((c = getchar()) != -1) crc = table[(crc ^ c) & 0xff] ^ (crc >> 8); /* here */
  return (int)(crc & 1);
}

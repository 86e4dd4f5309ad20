/* A list of nodes from a pool. */
struct node {
  int item;
  struct node *next;
};

static struct node pool[3];
static struct node *head;

static void push(int place, int item)
{
  pool[place].item = item;
  pool[place].next = head;
  head = &pool[place];
}

static int second(void)
{
  return head->next->item;
}

int main(void)
{
  push(0, 7);
  push(1, 9);
  return second();
}

cat web.log api.log mail.log | grep ERROR | LC_ALL=C sort | uniq -c | sed 's/^ *//'

#!lua name=recall

-- The functions of a partition: who may write to it, and each write to its streams. A partition's keys have one tag in
-- braces, so they lie together in a cluster. A lease is the text `NUMBER:WORD`: NUMBER is the fencing number, which
-- only rises, and WORD tells two workers apart where a crash of the server forgot a number that it had given.
--
-- Each looks at all its words before it writes: an error of the server in the midst of a function doesn't take back
-- what the function wrote before it.

-- The longest line that a stream of steps takes: any that is longer than 65,536 bytes is answered `bad-line` unread.
local LONGEST_LINE, LONGEST_NAME, LONGEST_FAULT = 65537, 256, 1000

-- Now, in milliseconds since 1970.
local function now()
  local time = redis.call('TIME')
  return time[1] * 1000 + math.floor(time[2] / 1000)
end

local function fenced(why)
  return redis.error_reply('FENCED ' .. why)
end

-- Whether a text is a whole number in its one form: digits, with no zero before them, and few enough for Lua to count.
local function is_whole(text)
  return #text <= 15 and string.match(text, '^%d+$') ~= nil and (text == '0' or string.sub(text, 1, 1) ~= '0')
end

local function no_number(what, text)
  return redis.error_reply('NUMBER ' .. what .. ' is not a whole number: ' .. string.sub(text, 1, 40))
end

-- The error where the time that a lease is to last isn't one, else nothing.
local function unless_time(text)
  if not is_whole(text) or text == '0' or #text > 9 then
    return no_number('the time of a lease', text)
  end
end

-- The error where these aren't the name of a host and the number of a process, else nothing.
local function unless_who(host, process)
  if #host > LONGEST_NAME then
    return redis.error_reply('NAME a host has a name of up to ' .. LONGEST_NAME .. ' bytes')
  end
  if not is_whole(process) then
    return no_number('a process', process)
  end
end

-- The error where this lease isn't the one that is held now, else nothing.
local function unless_held(key, lease, what)
  local held = redis.call('GET', key)
  if held ~= lease then
    return fenced(what .. ': the lease ' .. lease .. ' is over, and held is ' .. (held or 'none'))
  end
end

-- recall_take LEASE FENCE HOLDER, word, milliseconds, host, process: the new lease, or nothing where the partition has
-- one. HOLDER tells who has it, or had it last, and since when: it is for people, and nothing rests on it.
local function take(keys, args)
  local refused = unless_time(args[2]) or unless_who(args[3], args[4])
  if refused then
    return refused
  end
  if redis.call('EXISTS', keys[1]) == 1 then
    return false
  end
  local lease = redis.call('INCR', keys[2]) .. ':' .. args[1]
  redis.call('SET', keys[1], lease, 'PX', args[2])
  redis.call('SET', keys[3], cjson.encode({lease = lease, host = args[3], pid = tonumber(args[4]), since = now()}))
  return lease
end

-- recall_fault FAULT FAULTS, host, process, status, why: notes why a worker ended. FAULTS counts these.
local function fault(keys, args)
  local refused = unless_who(args[1], args[2])
  if refused then
    return refused
  end
  if not is_whole(args[3]) then
    return no_number('a status', args[3])
  end
  local why = string.sub(args[4], 1, LONGEST_FAULT)
  local words = {host = args[1], pid = tonumber(args[2]), status = tonumber(args[3]), when = now(), why = why}
  redis.call('SET', keys[1], cjson.encode(words))
  return redis.call('INCR', keys[2])
end

-- recall_renew LEASE, lease, milliseconds: makes it last so long from now on.
local function renew(keys, args)
  return unless_time(args[2]) or unless_held(keys[1], args[1], 'a renewal') or redis.call('PEXPIRE', keys[1], args[2])
end

-- recall_give_back LEASE, lease: ends it, unless it is over.
local function give_back(keys, args)
  return unless_held(keys[1], args[1], 'an end') and 0 or redis.call('DEL', keys[1])
end

-- Whether the id `one` is before the id `other`, each as its two numbers.
local function is_before(one, other)
  return one[1] < other[1] or (one[1] == other[1] and one[2] < other[2])
end

-- The error where the words of an append aren't a count and then, from the fourth on, ids in rising order, each with a
-- producer, a number or nothing, and a reply; else nothing.
local function unless_replies(args)
  if #args < 7 or #args % 4 ~= 3 then
    return redis.error_reply('WORDS an append has ' .. #args .. ' words')
  end
  if not is_whole(args[3]) then
    return no_number('the count of replies', args[3])
  end
  local last = {-1, 0}
  for at = 4, #args, 4 do
    local time, place = string.match(args[at], '^(%d+)-(%d+)$')
    local id = {tonumber(time), tonumber(place)}
    if not time or not is_before(last, id) then
      return redis.error_reply('WORDS an append has the id ' .. string.sub(args[at], 1, 40) .. ' out of place')
    end
    if args[at + 2] ~= '' and not is_whole(args[at + 2]) then
      return no_number('the number of the step ' .. args[at], args[at + 2])
    end
    last = id
  end
end

-- recall_append LEASE STEPS REPLIES, lease, milliseconds, count, then for each reply the id of its step, the producer,
-- its number of the step, and the reply. The stream of replies must have `count` of them, and the stream of steps the
-- last of these steps, or a crash of the server took what the worker knew. Each reply has its step's id as its own:
-- Redis takes ids in rising order alone, so a step has one reply at most. It renews the lease.
local function append(keys, args)
  local refused = unless_time(args[2]) or unless_replies(args) or unless_held(keys[1], args[1], 'an append')
  if refused then
    return refused
  end
  if redis.call('XLEN', keys[3]) ~= tonumber(args[3]) then
    return fenced('an append: the replies are ' .. redis.call('XLEN', keys[3]) .. ' and not ' .. args[3])
  end
  local last = args[#args - 3]
  if #redis.call('XRANGE', keys[2], last, last) == 0 then
    return fenced('an append: the step ' .. last .. ' is gone')
  end
  for at = 4, #args, 4 do
    redis.call('XADD', keys[3], args[at], 'from', args[at + 1], 'number', args[at + 2], 'reply', args[at + 3])
  end
  return redis.call('PEXPIRE', keys[1], args[2])
end

-- recall_keep LEASE REPLIES SNAPSHOT, lease, milliseconds, count, id, page, bytes: keeps the snapshot of a run behind
-- so many steps, the last of which has this id, with the page beside its journal. All of them must have their replies,
-- so that the next worker may go on from it. It renews the lease.
local function keep(keys, args)
  if #args ~= 6 then
    return redis.error_reply('WORDS a snapshot has ' .. #args .. ' words')
  end
  if not is_whole(args[3]) then
    return no_number('the steps of a snapshot', args[3])
  end
  local refused = unless_time(args[2]) or unless_held(keys[1], args[1], 'a snapshot')
  if refused then
    return refused
  end
  local count = tonumber(args[3])
  local last = redis.call('XRANGE', keys[2], args[4], args[4])
  if redis.call('XLEN', keys[2]) < count or #last == 0 then
    return fenced('a snapshot: the replies to its ' .. count .. ' steps are gone')
  end
  redis.call('HSET', keys[3], 'lines', args[3], 'at', args[4], 'about', args[5], 'bytes', args[6])
  return redis.call('PEXPIRE', keys[1], args[2])
end

-- recall_read REPLIES, id, count, bytes: the entries behind this id, so many at most, and no more once they have so
-- many bytes. XREAD has no limit of bytes: a thousand replies may be more than the server has memory for. Where the
-- entry with this id is gone (and the id isn't 0), a crash or a failover took it: what came in its place may have
-- lesser ids.
local function read(keys, args)
  if args[1] ~= '0' and #redis.call('XRANGE', keys[1], args[1], args[1]) == 0 then
    return redis.error_reply('GONE the entry ' .. args[1])
  end
  local found, bytes, last = {}, 0, args[1]
  while #found < tonumber(args[2]) and bytes < tonumber(args[3]) do
    local entry = redis.call('XRANGE', keys[1], '(' .. last, '+', 'COUNT', 1)[1]
    if not entry then
      break
    end
    found[#found + 1], last = entry, entry[1]
    for _, word in ipairs(entry[2]) do
      bytes = bytes + #word
    end
  end
  return found
end

local function other(name, what)
  return redis.error_reply('OTHER the producer ' .. name .. ' ' .. what)
end

-- What is known of a producer whose words are EPOCH STEPS PRODUCERS, epoch, producer: an error or nothing, then the
-- number of its next step, and the digest of all its steps. The key of producers has for each `NUMBER EPOCH DIGEST`,
-- where EPOCH is that of its last step. DIGEST is the SHA-1 of the digest before that step, in hexadecimal digits, and
-- of its line: so two runs of one name have the same where all their lines are.
local function known(keys, args)
  local epoch = redis.call('GET', keys[1]) or '0'
  if epoch ~= args[1] then
    return redis.error_reply('EPOCH ' .. epoch .. ' has begun')
  end
  if args[2] == '' or #args[2] > LONGEST_NAME then
    return redis.error_reply('NAME a producer has a name of 1 to ' .. LONGEST_NAME .. ' bytes')
  end
  local said = redis.call('HGET', keys[3], args[2])
  if not said then
    return nil, 0, ''
  end
  local number, last, digest = string.match(said, '^(%d+) (%d+) (%x+)$')
  if not number then
    return other(args[2], 'is noted without a digest: take another name')
  end
  if last ~= epoch then
    return other(args[2], 'has ' .. number .. ' steps of epoch ' .. last .. ': take another name in epoch ' .. epoch)
  end
  return nil, tonumber(number), digest
end

-- recall_next EPOCH STEPS PRODUCERS, epoch, producer: the number of its next step, and the digest of those before it.
local function next_of(keys, args)
  local refused, number, digest = known(keys, args)
  return refused or {number, digest}
end

-- recall_put EPOCH STEPS PRODUCERS, epoch, producer, number, digest, line: puts a step in where its number is the
-- producer's next one, and else nothing. The digest is that of the producer's steps before it: where it is another, or
-- the last step has another line, the name began anew with other lines, and nothing is put in. It answers as
-- recall_next does.
local function put(keys, args)
  if not is_whole(args[3]) then
    return no_number("a step's number", args[3])
  end
  if #args[5] > LONGEST_LINE then
    return redis.error_reply('LONG a line has ' .. #args[5] .. ' bytes, and ' .. LONGEST_LINE .. ' are taken')
  end
  local refused, number, digest = known(keys, args)
  if refused then
    return refused
  end
  local given, after = tonumber(args[3]), redis.sha1hex(args[4] .. args[5])
  if (given == number and args[4] ~= digest) or (given + 1 == number and after ~= digest) then
    return other(args[2], 'has ' .. number .. ' steps, and they are others')
  end
  if given == number then
    redis.call('XADD', keys[2], '*', 'from', args[2], 'number', args[3], 'line', args[5])
    number, digest = number + 1, after
    redis.call('HSET', keys[3], args[2], string.format('%d %s %s', number, args[1], digest))
  end
  return {number, digest}
end

-- recall_begin LEASE EPOCH STEPS REPLIES, lease, count: begins the next epoch, where the present one still has so many
-- steps and as many replies. It answers the epoch's number.
local function begin(keys, args)
  if not is_whole(args[2]) then
    return no_number('the count of steps', args[2])
  end
  local refused = unless_held(keys[1], args[1], 'an epoch')
  if refused then
    return refused
  end
  local steps, replies = redis.call('XLEN', keys[3]), redis.call('XLEN', keys[4])
  if steps ~= tonumber(args[2]) or replies ~= steps then
    return redis.error_reply('BUSY the partition has ' .. steps .. ' steps and ' .. replies .. ' replies')
  end
  return redis.call('INCR', keys[2])
end

redis.register_function('recall_take', take)
redis.register_function('recall_renew', renew)
redis.register_function('recall_give_back', give_back)
redis.register_function('recall_append', append)
redis.register_function('recall_keep', keep)
redis.register_function('recall_put', put)
redis.register_function('recall_begin', begin)
redis.register_function('recall_fault', fault)
redis.register_function{function_name = 'recall_next', callback = next_of, flags = {'no-writes'}}
redis.register_function{function_name = 'recall_read', callback = read, flags = {'no-writes'}}

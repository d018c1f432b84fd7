-- ---- the file readers

-- Takes a file as a recording.
local function open_recording(file, capture)
  local recording = Recording.new()
  recording.reader.window.file = file
  recording.times = times_of(recording.reader.window:bytes(0, PIECE), ch11.prefs.facts)
  take_first_time(recording.times, recording.reader.window)
  recording.reader.window = Window.new()
  file:seek("set", 0)
  capture.encap = ENCAPSULATION
  capture.time_precision = wtap_tsprecs.NSEC
  capture.private_table = recording
  return true
end

-- Whether a file begins with a packet's header, whose checksum is right.
local function begins_recording(file)
  local window = Window.new()
  window.file = file
  local head = window:bytes(0, HEADER_LEN)
  file:seek("set", 0)
  local fault = #head < HEADER_LEN and TRUNCATED or header_fault(head)
  return not fault or fault == WRONG_LENGTH
end

-- Whether a file begins with the sync pattern, or a packet of this project's stands near its beginning.
local function has_recording(file)
  local reader = Reader.new(MOST_BEGINNING)
  reader.window.file = file
  local found = reader.window:bytes(0, #SYNC) == SYNC
  while not found and reader.at <= MOST_BEGINNING do
    local piece = reader:next()
    if not piece then
      break
    end
    found = piece.what ~= "damage" and piece.what ~= "other"
  end
  file:seek("set", 0)
  return found
end

-- Registers a reader of the files for which `is_recording` holds.
local function register(name, short_name, kind, is_recording)
  local handler = FileHandler.new(name, short_name, name, kind)

  function handler.read_open(file, capture)
    local is_done, is_open = pcall(function()
      return is_recording(file) and open_recording(file, capture)
    end)
    return is_done and is_open or false
  end

  function handler.read(file, capture, frame)
    local recording = capture.private_table
    recording.reader.window.file = file
    local is_done, place = pcall(recording.next_row, recording, frame)
    return (is_done and place or not is_done and recording:give_failure(frame, place)) or false
  end

  function handler.seek_read(file, capture, frame, place)
    local recording = capture.private_table
    recording.window.file = file
    local is_done, is_there = pcall(recording.row_at, recording, frame, place)
    return is_done and is_there
  end

  handler.read_close, handler.seq_read_close = function() end, function() end
  handler.extensions = "ch11"
  register_filehandler(handler)
end

register("Recording of bpfrec (IRIG 106-17 Chapter 11)", "ch11", "rm", begins_recording)
register("Recording of bpfrec whose beginning is damaged", "ch11_damaged", "rs", has_recording)
